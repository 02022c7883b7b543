module bench

go 1.19

require (
	firthnapkin.example/go v0.1.0
	github.com/vektah/gqlparser/v2 v2.5.1
)

replace firthnapkin.example/go => ../
