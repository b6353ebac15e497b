m,a=1 v=1i 1
m,b=1 v=2i 1
n,a=1 v=3i 1
n,b=1 v=4i 1
