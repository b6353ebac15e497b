m v=1i 0
m v=2i 1
m v=-9223372036854775809i 5
also wrong
