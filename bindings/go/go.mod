// In the repository tools/releasing/go-path sets this path, here and in all imports and documents.
module sumelgos.example/squall/bindings/go

go 1.19
