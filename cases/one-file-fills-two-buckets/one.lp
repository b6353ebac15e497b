m v=1i 1
n v=7i 2
