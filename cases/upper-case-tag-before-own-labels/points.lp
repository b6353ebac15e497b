m,Zone=z v=1i 1
m,zone=a v=2i 1
m v=3i 1
m,Zone=a v=4i 1
