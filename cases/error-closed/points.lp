m v
