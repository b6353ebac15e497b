m v=1i 3
m v=2i
