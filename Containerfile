# lpis in a container of Debian, by its package: docs/WINDOWS.md tells how it is built and run.
FROM docker.io/library/debian:12-slim
COPY release/lpis_*_amd64.deb /tmp/
RUN apt-get update \
 && apt-get install --yes --no-install-recommends /tmp/lpis_*_amd64.deb python3-shapely python3-pyproj gdal-bin sqlite3 \
 && rm -rf /tmp/lpis_*_amd64.deb /var/lib/apt/lists/*
WORKDIR /data
CMD ["lpis", "--help"]
