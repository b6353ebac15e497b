m v=1i 0

m v=