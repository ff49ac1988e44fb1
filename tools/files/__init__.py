"""What stands on disks: the journals of nodes, and the files of a library.

disk     journals as they stand on disks
gather   a folder's journal files as inputs of `lockss evidence`
archive  files as AUs, by a manifest, and back
"""
