"""Takes the numbers of tables out to HDF5 and NetCDF files, and back: `python/acas_export` and `python/acas_import`.

`acas_table.layout` says what a file has. `hdf5` and `netcdf` are the only modules that know a library.
"""
