m,k=b v=1i 0
m,k=z v=1i 0
m,k=a.b v=1i 0
m,k=_ v=1i 0
m,k=ab v=1i 0
m,k=Z v=1i 0
m,k=a v=1i 0
