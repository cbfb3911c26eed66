"""Python around `mountd`: a client of its line protocol, a mount through FUSE, and bridges to Git's objects.

`client` speaks the line protocol, `kernel` mounts a folder that `mountd fuse` shows, `overlay` knows an overlay's
directory, `git` a repository, and `partial_clone` one whose remote has what it lacks. `mount_git`, `git_objects`,
`objects_from_git` and `eden_shell` are the commands of these names.
"""
