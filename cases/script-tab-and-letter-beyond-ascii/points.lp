m v=1i 5
