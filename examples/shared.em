cores 2
pool p 3 0
eo x running
agroup a all
queue q atomic x normal in a
queue r atomic x normal in a
boot
alloc v0 p 1
send v0 q
alloc v0 p 2
send v0 r
alloc v0 p 3
send v0 q
end
body x receive
cell 3 add cell 3 kind
say cell 3
free me
end
done
