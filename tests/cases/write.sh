# how a file is written: its mode stays, a link stays a link, a folder or a link to nothing is refused, a device is no file to replace
p='examples/net-p/request'
printf 'old' >kept && chmod 640 kept
told allocate $p kept
ls -l kept | cut -c 1-10
ln -s kept link
told allocate $p link
[ -L link ] && cmp kept examples/net-p/assignment && echo 'the link is a link still'
mkdir folder
told allocate $p folder
ln -s nowhere broken
told allocate $p broken
told allocate $p no-folder/assignment
told allocate $p /dev/null
[ -c /dev/null ] && echo 'the device is a device still'
ls -A
