m v=2i 2
m v=9i 0
