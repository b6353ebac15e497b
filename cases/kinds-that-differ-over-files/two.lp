m v="x" 5
