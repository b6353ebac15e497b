m v=2i 1
