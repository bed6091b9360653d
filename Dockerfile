# An image with the command adp and its tools: docker build -t adp . && docker run --rm -i adp serial < jobs/bar.adp
# The first stage installs from the checkout, where the program stands in prebuilt/; the second has what was installed,
# the C library of its system, and what the launcher and the tools in Python run by.
FROM debian:stable-slim AS installed
COPY . /checkout
RUN /checkout/tools/install /opt/adp

FROM debian:stable-slim
RUN apt-get update && apt-get install -y --no-install-recommends python3 && rm -rf /var/lib/apt/lists/*
COPY --from=installed /opt/adp /opt/adp
ENV PATH=/opt/adp/bin:$PATH
ENTRYPOINT ["adp"]
CMD ["--help"]
