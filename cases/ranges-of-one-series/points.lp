cpu value=1i 5
cpu value=2i 3
cpu value=3i 5
