m v=1i 0
m v=2i 1
m,a= v=1i 5
also wrong
