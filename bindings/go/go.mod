module example.org/kombilad

go 1.19
