from(bucket: "hosts") |> range(start: 2024-05-01T12:02:00Z, stop: 2024-05-01T12:03:00Z)
