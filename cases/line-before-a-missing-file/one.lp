m v=1i 1
m v=1.5 2
