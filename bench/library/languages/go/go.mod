module routes

go 1.19

require sumelgos.example/squall/bindings/go v0.0.0

replace sumelgos.example/squall/bindings/go => ../../../../bindings/go
