; Saves, as acl2-lrat in the folder that it runs in, an image of ACL2 with the checker of the community books that is proved sound.
(include-book "projects/sat/lrat/incremental/run" :dir :system)
:q
(save-exec "acl2-lrat" "with projects/sat/lrat/incremental")
