cores 1
pool p 1 0
eo x running
queue q parallel x normal all
queue box unscheduled
boot
alloc v0 p 1
send v0 q
dequeue v1 q
say v1
end
body x receive
send me box
dequeue v0 box
free v0
end
done
