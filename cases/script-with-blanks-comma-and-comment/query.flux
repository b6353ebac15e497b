from ( bucket : "b" , ) // x
|> range(start: 1970-01-01, stop: 1970-01-01T00:01:00Z)