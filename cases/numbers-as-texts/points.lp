m,n=10 v=1i 1
m,n=9 v=2i 1
m,n=-1 v=3i 1
m,n=true v=4i 1
m,n=.a v=5i 1
