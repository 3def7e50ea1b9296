cores 1
pool p 4 0
eo x running
queue q parallel x normal all
boot
free 7
alloc v0 p 1
send v0 q
send v0 q
alloc v1 p 2
free v1
free v1
end
body x receive
keep me
free me
claim v0
free v0
end
done
