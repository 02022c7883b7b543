module firthnapkin.example/go

go 1.19
