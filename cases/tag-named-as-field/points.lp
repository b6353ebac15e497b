m,v=x v=1i 1
m,value=x v=2i 1
