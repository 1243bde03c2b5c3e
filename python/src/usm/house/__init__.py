"""The bill of a house that has outgrown one machine: `python3 -m usm.house HOLDINGS`.

Films are scanned by the workers of a Dask cluster, or by processes on this machine. What they find goes to a database, where
bill.sql makes the bill.
"""
