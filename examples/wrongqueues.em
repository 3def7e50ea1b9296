cores 1
pool p 1 0
eo x running
queue q atomic x normal all
queue wire output
boot
dequeue v0 q
say v0
dequeue v0 wire
cell 0 5
endatomic
say cell 0
alloc v0 p 1
send v0 q
end
body x receive
cell 8 5
say cell 0
endatomic
endatomic
free me
end
done
