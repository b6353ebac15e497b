m v=1i 1
m v="x" 2
