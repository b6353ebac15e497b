from(bucket: "b)
