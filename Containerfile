# dmf in a container, for systems that are not Linux on x86-64:
#     podman build -t dmf .
#     podman run --rm -i dmf solve --cut <examples/a.max
# With Docker, write `docker`, and add `-f Containerfile` to the first command.
FROM --platform=linux/amd64 docker.io/library/debian:12-slim
COPY . /opt/dmf
RUN /opt/dmf/dmf --version
WORKDIR /work
ENTRYPOINT ["/opt/dmf/dmf"]
