m v=1i,w=1.5 3
m w=2.5 4
m v=3i 5
