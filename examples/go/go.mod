module pgpeer

go 1.18
