module sumelgos.example/squall/integrations/postgresql/go

go 1.19

require (
	github.com/lib/pq v1.10.7
	sumelgos.example/squall/bindings/go v0.0.0
)

replace sumelgos.example/squall/bindings/go => ../../../bindings/go
