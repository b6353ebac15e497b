m v=1i 0
