module github.com/zsched/zsched/bindings/go

go 1.19
