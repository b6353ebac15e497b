m,b=2,a=1 v=1i 1
m,a=1,b=2 v=2i 2
m,c=3,a=1,b=2 v=3i 3
