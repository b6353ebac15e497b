cpu,host=a usage=1i 1000000000
cpu,host=a usage=2i 2000000000
