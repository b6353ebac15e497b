from(bucket: "b") |> range(start: 1970-01-01T00:00:00Z, stop: 1970-01-01T00:01:00Z)
