m v=1i 0
m v=2i 1
m v=1i -9223372036854775807
also wrong
