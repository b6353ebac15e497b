m v=1i 0
m v=2i 1
