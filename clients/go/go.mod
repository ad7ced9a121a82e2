module sagas

go 1.19
