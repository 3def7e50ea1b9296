cores 1
pool p 2 1
eo x running
queue q parallel x normal all
queue box unscheduled
boot
alloc v0 p 1 10
send v0 box
alloc v0 p 2 20
send v0 q
end
body x receive
dequeue v0 box
say word 0
free v0
dequeue v1 box
say v1
free me
end
done
