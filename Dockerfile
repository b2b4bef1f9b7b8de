# An image whose entrance is picklestep:
#
#     docker build -t picklestep .
#     docker run --rm --network none -v "$PWD:/data:ro" picklestep scan .
FROM python:3.12-slim-bookworm
COPY . /source
RUN /source/install /usr/local && rm -rf /source
USER nobody
WORKDIR /data
ENTRYPOINT ["picklestep"]
