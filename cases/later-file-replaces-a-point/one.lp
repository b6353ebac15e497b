m v=1i 1
