cores 1
pool p 1 0
boot
alloc v0 p 1
free add v0 1
free v0
end
done
