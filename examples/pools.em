cores 1
pool small 1 2
pool large 2 4
boot
alloc v0 small 1 10 20 30
alloc v1 small 2 10 20
alloc v2 small 3
say ok
say v2
alloc v3 large 4 10 20 30
free v1
alloc v2 small 5
end
done
