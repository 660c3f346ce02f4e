// What the page's policy can't refuse is taken away before anything else runs: a peer connection asks no rule where it sends.
for (const name of ["RTCPeerConnection", "webkitRTCPeerConnection"]) Reflect.deleteProperty(globalThis, name);
