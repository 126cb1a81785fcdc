"""gz-modprobe beside kmod's modprobe: folders of modules, a change of root, queries, and what differs."""
