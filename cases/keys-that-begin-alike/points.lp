m,a=xy v=1i 1
m,a=x v=2i 1
m,a=x,b=z v=3i 1
m,a=x.y v=4i 1
m,ab=x v=5i 1
m v=6i 1
