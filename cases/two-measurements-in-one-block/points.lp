mem,host=b used=3i 1
cpu,host=b usage=1i 1
cpu,host=a idle=4i 1
cpu,host=a usage=2i 1
mem,host=a used=5i 2
